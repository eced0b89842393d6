; program PLM a number in decimal
; code 0000
; stack 23C0 0040
; data 2000 03C0
; stores 7
VALUE:  EQU 2000H              ; NUMOUT: PROCEDURE(VALUE); DECLARE VALUE ADDRESS, DIGITS (5) BYTE, I BYTE
DIGITS: EQU 2002H
I:      EQU 2007H
CHAR:   EQU 2008H
        LXI SP,2400H
        IN 4
        MOV C,A
        IN 5
        MOV B,A
        CALL NUMOUT
        HLT
NUMOUT: LXI H,VALUE+1
        MOV M,B
        DCX H
        MOV M,C
        LXI H,I                ; DO I = 0 TO 4; DIGITS(4-I) = VALUE MOD 10 + '0'; VALUE = VALUE / 10; END
        MVI M,0
NUM1:   MVI A,4
        LXI H,I
        CMP M
        JC NUM2
        LHLD VALUE
        XCHG
        LXI B,10
        CALL DIVIDE
        XCHG
        SHLD VALUE
        MOV A,E
        ADI '0'
        PUSH PSW
        MVI A,4
        LXI H,I
        SUB M
        MOV C,A
        MVI B,0
        LXI H,DIGITS
        DAD B
        POP PSW
        MOV M,A
        LXI H,I
        INR M
        JNZ NUM1
NUM2:   LXI H,I                ; DO I = 0 TO 4; CALL CO(DIGITS(I)); END
        MVI M,0
NUM3:   MVI A,4
        LXI H,I
        CMP M
        JC NUM4
        LHLD I
        MVI H,0
        LXI B,DIGITS
        DAD B
        MOV C,M
        CALL CO
        LXI H,I
        INR M
        JNZ NUM3
NUM4:   RET
CO:     MOV A,C                ; CO: PROCEDURE(CHAR); OUTPUT(1) = CHAR
        STA CHAR
        OUT 1
        RET
DIVIDE: LXI H,0                ; DE by BC: the quotient in DE, the rest in HL
        MVI A,16
DIV1:   PUSH PSW
        DAD H
        XCHG
        DAD H
        XCHG
        JNC DIV2
        INX H
DIV2:   MOV A,L
        SUB C
        MOV A,H
        SBB B
        JC DIV3
        MOV A,L
        SUB C
        MOV L,A
        MOV A,H
        SBB B
        MOV H,A
        INX D
DIV3:   POP PSW
        DCR A
        JNZ DIV1
        RET
