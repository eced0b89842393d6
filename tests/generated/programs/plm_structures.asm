; program PLM a table of structures of five bytes
; code 0000
; stack 23C0 0040
; data 2000 03C0
; stores 9
; listed STATE1 index in memory, times five
; listed LOW1 index in memory, times five
; listed HIGH1 index in memory, times five
TABLE:  EQU 2000H              ; DECLARE TABLE (8) STRUCTURE (STATE BYTE, START ADDRESS, STOP ADDRESS), (I, CHANGES) BYTE
I:      EQU 2028H
CHANGE: EQU 2029H
        LXI SP,2400H
        LXI H,CHANGE
        MVI M,0
        LXI H,I                ; DO I = 0 TO 7
        MVI M,0
LOOP:   MVI A,7
        LXI H,I
        CMP M
        JC DONE
        LHLD I                 ; TABLE(I).STATE = INPUT(3)
        MVI H,0
        MOV B,H
        MOV C,L
        DAD H
        DAD H
        DAD B
        LXI B,TABLE
        DAD B
        IN 3
STATE1: MOV M,A
        INX H                  ; TABLE(I).START = 0
        XRA A
LOW1:   MOV M,A
        INX H
HIGH1:  MOV M,A
        LXI H,CHANGE           ; CHANGES = CHANGES + 1
        INR M
        LXI H,I
        INR M
        JNZ LOOP
DONE:   LXI H,TABLE            ; TABLE(0).STATE = 1
        MVI M,1
        LXI H,TABLE+35         ; TABLE(7).STATE = TABLE(7).STATE - 1
        DCR M
        HLT
