; program PLM the primes below 256 by a sieve
; code 0000
; stack 23C0 0040
; data 2000 03C0
; stores 7
; listed STRIKE word variable in memory, compared
FLAGS:  EQU 2000H              ; DECLARE FLAGS (256) BYTE, (I, COUNT) BYTE, K ADDRESS
I:      EQU 2100H
COUNT:  EQU 2101H
K:      EQU 2102H
        LXI SP,2400H
        LXI H,COUNT
        MVI M,0
        LXI H,I                ; DO I = 0 TO 255; FLAGS(I) = 1; END
        MVI M,0
SET:    LHLD I
        MVI H,0
        LXI B,FLAGS
        DAD B
        MVI M,1
        LXI H,I
        INR M
        JNZ SET
        MVI M,2                ; I = 2; DO WHILE I <> 0
TRY:    LHLD I                 ; IF FLAGS(I) THEN
        MVI H,0
        LXI B,FLAGS
        DAD B
        MOV A,M
        RAR
        JNC NEXT
        LXI H,COUNT
        INR M
        LHLD I                 ; K = I + I
        MVI H,0
        DAD H
        SHLD K
EACH:   LXI D,255              ; DO WHILE K <= 255
        LXI H,K
        MOV A,E
        SUB M
        INX H
        MOV A,D
        SBB M
        JC NEXT
        LHLD K                 ; FLAGS(K) = 0
        LXI B,FLAGS
        DAD B
STRIKE: MVI M,0
        LHLD I                 ; K = K + I
        MVI H,0
        XCHG
        LHLD K
        DAD D
        SHLD K
        JMP EACH
NEXT:   LDA I
        INR A
        STA I
        JNZ TRY
        LDA COUNT
        OUT 1
        HLT
