; program PLM a running sum of sixteen samples
; code 0000
; stack 2080 0020
; data 2000 0080
; quiet 2040 0004
; stores 2
SAMPLES: EQU 2000H             ; DECLARE SAMPLES (16) BYTE, INDEX BYTE, SUM ADDRESS
INDEX:  EQU 2040H
SUM:    EQU 2042H
        LXI SP,20A0H
        LXI H,SAMPLES
        MVI B,16
CLEAR:  MVI M,0
        INX H
        DCR B
        JNZ CLEAR
        LXI H,0
        SHLD SUM
        XRA A
        STA INDEX
LOOP:   CALL TAKE
        CALL SHOW
        JMP LOOP
TAKE:   LHLD INDEX             ; SUM = SUM - SAMPLES(INDEX) + INPUT(0)
        MVI H,0
        LXI D,SAMPLES
        DAD D
        MOV A,M
        CMA
        MOV E,A
        MVI D,0FFH
        IN 0
        MOV M,A                ; SAMPLES(INDEX) = INPUT(0)
        LHLD SUM
        DAD D
        INX H
        MOV E,A
        MVI D,0
        DAD D
        SHLD SUM
        LDA INDEX              ; INDEX = INDEX + 1; IF INDEX = 16 THEN INDEX = 0
        INR A
        STA INDEX
        CPI 16
        RNZ
        XRA A
        STA INDEX
        RET
SHOW:   LHLD SUM
        MOV A,H
        OUT 0
        MOV A,L
        OUT 1
        RET
