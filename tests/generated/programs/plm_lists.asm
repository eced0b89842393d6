; program PLM records on two lists, linked by addresses
; code 0000
; stack 23C0 0040
; data 2000 03C0
; stores 13
; listed LINK1 pointer in memory
; listed LINK2 pointer in memory
; listed KEY1 pointer in memory
; listed TAKE1 pointer in memory
; listed TAKE2 pointer in memory
HEAD:   EQU 2000H              ; DECLARE (HEAD, FREE, P) ADDRESS, R BASED P STRUCTURE (NEXT ADDRESS, KEY BYTE), POOL (24) BYTE
FREE:   EQU 2002H
P:      EQU 2004H
KEY:    EQU 2006H
N:      EQU 2007H
POOL:   EQU 2010H
        LXI SP,2400H
        LXI H,0                ; HEAD, FREE = 0
        SHLD HEAD
        SHLD FREE
        LXI H,POOL             ; P = .POOL
        SHLD P
        LXI H,N                ; DO N = 1 TO 8; R.NEXT = FREE; FREE = P; P = P + 3; END
        MVI M,1
INIT:   MVI A,8
        LXI H,N
        CMP M
        JC LOOP
        LHLD FREE
        XCHG
        LHLD P
LINK1:  MOV M,E
        INX H
LINK2:  MOV M,D
        LHLD P
        SHLD FREE
        LXI D,3
        DAD D
        SHLD P
        LXI H,N
        INR M
        JNZ INIT
LOOP:   LHLD FREE              ; DO WHILE FREE <> 0; CALL ADD(INPUT(1)); END
        MOV A,H
        ORA L
        JZ DONE
        IN 1
        MOV C,A
        CALL INSERT
        JMP LOOP
DONE:   LXI H,N
        MVI M,0
        LXI H,KEY
        MVI M,0
        HLT
INSERT: LXI H,KEY              ; P = FREE; FREE = R.NEXT; R.NEXT = HEAD; HEAD = P; R.KEY = KEY
        MOV M,C
        LHLD FREE
        SHLD P
        MOV E,M
        INX H
        MOV D,M
        XCHG
        SHLD FREE
        LHLD HEAD
        XCHG
        LHLD P
TAKE1:  MOV M,E
        INX H
TAKE2:  MOV M,D
        INX H
        LDA KEY
KEY1:   MOV M,A
        LHLD P
        SHLD HEAD
        LXI H,N                ; N = N - 1; and a copy of the last key for the display
        DCR M
        LDA KEY
        LXI H,POOL+24
        MOV M,A
        INX H
        MVI M,0
        RET
