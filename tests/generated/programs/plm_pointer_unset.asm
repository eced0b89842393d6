; program PLM a based pointer that is never set
; code 0000
; stack 23C0 0040
; data 2000 03C0
; stores 8
; listed FALL fault: the pointer is never set
; listed STEP pointer in memory
P:      EQU 2000H              ; DECLARE (P, Q) ADDRESS, (B BASED P, C BASED Q) BYTE, (N, LAST) BYTE
Q:      EQU 2002H
N:      EQU 2004H
LAST:   EQU 2005H
BUF:    EQU 2010H
        LXI SP,2400H
        LXI H,N
        MVI M,0
        LXI H,BUF              ; Q = .BUF
        SHLD Q
LOOP:   MVI A,31               ; DO N = 0 TO 31
        LXI H,N
        CMP M
        JC DONE
        IN 1                   ; LAST = INPUT(1)
        LXI H,LAST
        MOV M,A
        LHLD Q                 ; C = LAST; Q = Q + 1
STEP:   MOV M,A
        INX H
        SHLD Q
        CPI 0DH                ; IF LAST = 0DH THEN B = N
        JNZ NEXT
        LDA N
        LHLD P
FALL:   MOV M,A
        LXI H,LAST
        MVI M,0
NEXT:   LXI H,N
        INR M
        JNZ LOOP
DONE:   LXI H,LAST
        MVI M,0FFH
        LXI H,BUF+32
        MVI M,0
        HLT
