; program PLM a block is moved through based pointers
; code 0000
; stack 23C0 0040
; data 2000 03C0
; stores 9
; listed PUTS pointer in memory
FROM:   EQU 2000H
TO:     EQU 2040H
SOURCE: EQU 2080H              ; MOVE: PROCEDURE(SOURCE, DEST, COUNT); (S BASED SOURCE, D BASED DEST) BYTE
DEST:   EQU 2082H
COUNT:  EQU 2084H
        LXI SP,2400H
        LXI H,FROM
        MVI M,'A'
        LXI H,FROM+1
        MVI M,'B'
        LXI B,FROM             ; CALL MOVE(.FROM, .TO, 64)
        PUSH B
        LXI B,TO
        LXI D,64
        CALL MOVE
        HLT
MOVE:   LXI H,COUNT+1
        MOV M,D
        DCX H
        MOV M,E
        DCX H
        MOV M,B
        DCX H
        MOV M,C
        DCX H
        POP D
        POP B
        MOV M,B
        DCX H
        MOV M,C
        PUSH D
MOVE1:  LHLD COUNT             ; DO WHILE COUNT <> 0
        MOV A,L
        ORA H
        JZ MOVED
        LHLD SOURCE            ; D = S
        MOV A,M
        LHLD DEST
PUTS:   MOV M,A
        LHLD SOURCE            ; SOURCE = SOURCE + 1; DEST = DEST + 1; COUNT = COUNT - 1
        INX H
        SHLD SOURCE
        LHLD DEST
        INX H
        SHLD DEST
        LHLD COUNT
        DCX H
        SHLD COUNT
        JMP MOVE1
MOVED:  RET
