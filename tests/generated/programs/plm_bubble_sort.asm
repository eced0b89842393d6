; program PLM bubble sort of twenty keys
; code 0000
; stack 23C0 0040
; data 2000 03C0
; stores 10
KEY:    EQU 2000H              ; DECLARE KEY (20) BYTE, (I, SWITCHED, T) BYTE
I:      EQU 2014H
SWITCH: EQU 2015H
T:      EQU 2016H
        LXI SP,2400H
        LXI H,I                ; DO I = 0 TO 19; KEY(I) = INPUT(7); END
        MVI M,0
READ:   MVI A,19
        LXI H,I
        CMP M
        JC SORT
        IN 7
        LXI H,I
        MOV C,M
        MVI B,0
        LXI H,KEY
        DAD B
        MOV M,A
        LXI H,I
        INR M
        JNZ READ
SORT:   LXI H,SWITCH           ; SWITCHED = 1; DO WHILE SWITCHED; SWITCHED = 0
        MVI M,1
SORT1:  LDA SWITCH
        RAR
        JNC DONE
        LXI H,SWITCH
        MVI M,0
        LXI H,I                ; DO I = 0 TO 18
        MVI M,0
SORT2:  MVI A,18
        LXI H,I
        CMP M
        JC SORT1
        MOV C,M                ; IF KEY(I) > KEY(I+1) THEN
        MVI B,0
        LXI H,KEY
        DAD B
        PUSH H
        LXI H,KEY+1
        DAD B
        MOV A,M
        POP D
        XCHG
        CMP M
        JNC SORT3
        MOV A,M                ; T = KEY(I); KEY(I) = KEY(I+1); KEY(I+1) = T; SWITCHED = 1
        STA T
        LDAX D
        MOV M,A
        LDA T
        STAX D
        LXI H,SWITCH
        MVI M,1
SORT3:  LXI H,I
        INR M
        JNZ SORT2
DONE:   HLT
