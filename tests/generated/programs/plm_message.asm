; program PLM a message from CODE into a line of 64
; code 0000
; stack 23C0 0040
; data 2000 03C0
; stores 8
LINE:   EQU 2000H              ; DECLARE MSG DATA ('..', 0), LINE (64) BYTE, I BYTE
I:      EQU 2040H
LAST:   EQU 2041H
        LXI SP,2400H
        LXI H,I                ; DO I = 0 TO LAST(LINE); LINE(I) = ' '; END
        MVI M,0
BLANK:  MVI A,63
        LXI H,I
        CMP M
        JC COPY
        LHLD I
        MVI H,0
        LXI B,LINE
        DAD B
        MVI M,' '
        LXI H,I
        INR M
        JNZ BLANK
COPY:   LXI H,I                ; I = 0; DO WHILE MSG(I) <> 0; LINE(I) = MSG(I); I = I + 1; END
        MVI M,0
COPY1:  LHLD I
        MVI H,0
        LXI B,MSG
        DAD B
        MOV A,M
        CPI 0
        JZ COPIED
        LHLD I
        MVI H,0
        LXI B,MSG
        DAD B
        PUSH H
        LHLD I
        LXI B,LINE
        MVI H,0
        DAD B
        POP B
        LDAX B
        MOV M,A
        LXI H,I
        INR M
        JMP COPY1
COPIED: LXI H,LINE+63          ; LINE(63) = 0DH; LAST = I
        MVI M,0DH
        LDA I
        LXI H,LAST
        MOV M,A
        HLT
MSG:    DB "READY FOR COMMANDS",0
