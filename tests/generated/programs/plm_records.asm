; program PLM ten records, one chosen by its number
; code 0000
; stack 2080 0020
; data 2000 0080
; quiet 2040 0001
; stores 3
; listed FALL fault: a number that isn't checked
RECORDS: EQU 2000H             ; DECLARE RECORDS (10) STRUCTURE (A BYTE, B BYTE, C (4) BYTE), CHOSEN BYTE
CHOSEN: EQU 2040H
        LXI SP,20A0H
        XRA A
        STA CHOSEN
LOOP:   CALL CHOOSE
        CALL SET
        IN 3
        MOV E,A
        MVI D,0
        LXI H,RECORDS
        DAD D
FALL:   MVI M,0
        JMP LOOP
CHOOSE: IN 0                   ; IF INPUT(0) < 10 THEN CHOSEN = INPUT(0)
        CPI 10
        RNC
        STA CHOSEN
        RET
SET:    LHLD CHOSEN            ; RECORDS(CHOSEN).A = INPUT(1), .B = INPUT(2)
        MVI H,0
        MOV D,H
        MOV E,L
        DAD H
        DAD D
        DAD H
        LXI D,RECORDS
        DAD D
        IN 1
        MOV M,A
        INX H
        IN 2
        MOV M,A
        RET
