; program PLM one past the end of the last array
; code 0000
; stack 20E0 0020
; data 2000 00E0
; stores 6
; listed FALL fault: DO I = 0 TO 64 over 64 bytes, the 65th is in STACK
SUM:    EQU 2000H              ; DECLARE (SUM, I, MAX) BYTE, SAMPLES (64) BYTE
I:      EQU 2001H
MAX:    EQU 2002H
SAMPLE: EQU 20A0H
        LXI SP,2100H
        LXI H,SUM              ; SUM, MAX = 0
        MVI M,0
        LXI H,MAX
        MVI M,0
        LXI H,I                ; DO I = 0 TO 64; SAMPLES(I) = INPUT(6); END
        MVI M,0
LOOP:   MVI A,64
        LXI H,I
        CMP M
        JC DONE
        IN 6
        LXI H,I
        MOV E,M
        MVI D,0
        LXI H,SAMPLE
        DAD D
FALL:   MOV M,A
        LXI H,MAX
        CMP M
        JC NEXT
        MOV M,A
NEXT:   LXI H,I
        INR M
        JNZ LOOP
DONE:   HLT
