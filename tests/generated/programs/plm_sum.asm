; program PLM adds up sixteen bytes from a port
; code 0000
; stack 23C0 0040
; data 2000 03C0
; stores 8
BUFFER: EQU 2000H              ; DECLARE BUFFER (16) BYTE, I BYTE, SUM ADDRESS
I:      EQU 2010H
SUM:    EQU 2011H
        LXI SP,2400H
        LXI H,I                ; DO I = 0 TO 15; BUFFER(I) = INPUT(1); END
        MVI M,0
FILL:   MVI A,15
        LXI H,I
        CMP M
        JC FILLED
        IN 1
        LHLD I
        MVI H,0
        LXI B,BUFFER
        DAD B
        MOV M,A
        LXI H,I
        INR M
        JNZ FILL
FILLED: LXI H,0                ; SUM = 0
        SHLD SUM
        LXI H,I                ; DO I = 0 TO 15; SUM = SUM + BUFFER(I); END
        MVI M,0
ADD1:   MVI A,15
        LXI H,I
        CMP M
        JC ADDED
        LHLD I
        MVI H,0
        LXI B,BUFFER
        DAD B
        MOV C,M
        MVI B,0
        LHLD SUM
        DAD B
        SHLD SUM
        LXI H,I
        INR M
        JNZ ADD1
ADDED:  LDA SUM                ; OUTPUT(2) = LOW(SUM); OUTPUT(3) = HIGH(SUM)
        OUT 2
        LXI H,SUM+1
        MOV A,M
        OUT 3
        LXI H,I                ; I = 0; BUFFER(0) = 0FFH
        MVI M,0
        LXI H,BUFFER
        MVI M,0FFH
        LXI H,BUFFER+15        ; BUFFER(15) = BUFFER(15) + 1
        INR M
        HLT
