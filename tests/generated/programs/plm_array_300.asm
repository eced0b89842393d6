; program PLM an array of 300 bytes with an ADDRESS index
; code 0000
; stack 23C0 0040
; data 2000 03C0
; stores 3
; listed CLEARS word variable in memory, compared
; listed COUNTS word variable in memory, compared
I:      EQU 2000H              ; DECLARE I ADDRESS, BUF (300) BYTE, N BYTE
N:      EQU 2002H
BUF:    EQU 2100H
        LXI SP,2400H
        LXI H,0                ; DO I = 0 TO 299; BUF(I) = 0; END
        SHLD I
CLEAR:  MVI A,LOW(299)
        LXI H,I
        SUB M
        INX H
        MVI A,HIGH(299)
        SBB M
        JC CLEARD
        LHLD I
        LXI B,BUF
        DAD B
CLEARS: MVI M,0
        LXI D,1
        LHLD I
        DAD D
        SHLD I
        JNC CLEAR
CLEARD: LXI H,N                ; DO N = 0 TO 9; I = INPUT(1); BUF(I) = BUF(I) + 1; END
        MVI M,10
COUNT:  IN 1
        MOV L,A
        MVI H,0
        SHLD I
        LXI B,BUF
        LHLD I
        DAD B
COUNTS: INR M
        LDA N
        DCR A
        STA N
        JNZ COUNT
        HLT
