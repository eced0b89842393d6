; program PLM a ring buffer between two ports, with 256 bytes of RAM
; code 0000
; stack 20E0 0020
; data 2000 00E0
; stores 8
; listed PUTS index in memory, bounded by AND
RING:   EQU 2000H              ; DECLARE RING (32) BYTE, (HEAD, TAIL, COUNT, CHAR, LOST) BYTE
HEAD:   EQU 2020H
TAIL:   EQU 2021H
COUNT:  EQU 2022H
CHAR:   EQU 2023H
LOST:   EQU 2024H
        LXI SP,2100H
        LXI H,HEAD             ; HEAD, TAIL, COUNT = 0
        MVI M,0
        LXI H,TAIL
        MVI M,0
        LXI H,COUNT
        MVI M,0
LOOP:   IN 0                   ; IF INPUT(0) THEN CALL PUT(INPUT(1))
        RRC
        JNC SEND
        IN 1
        MOV C,A
        CALL PUT
SEND:   IN 0                   ; IF (INPUT(0) AND 2) <> 0 AND COUNT <> 0 THEN OUTPUT(1) = GET
        ANI 2
        JZ LOOP
        LDA COUNT
        ORA A
        JZ LOOP
        CALL GET
        OUT 1
        JMP LOOP
PUT:    LXI H,CHAR             ; PUT: PROCEDURE(CHAR)
        MOV M,C
        LDA COUNT              ; IF COUNT = 32 THEN DO; LOST = LOST + 1; RETURN; END
        CPI 32
        JNZ PUT1
        LXI H,LOST
        INR M
        RET
PUT1:   LHLD HEAD              ; RING(HEAD) = CHAR
        MVI H,0
        LXI B,RING
        DAD B
        LDA CHAR
PUTS:   MOV M,A
        LDA HEAD               ; HEAD = (HEAD + 1) AND 31
        INR A
        ANI 31
        STA HEAD
        LXI H,COUNT            ; COUNT = COUNT + 1
        INR M
        RET
GET:    LHLD TAIL              ; GET: PROCEDURE BYTE; CHAR = RING(TAIL)
        MVI H,0
        LXI B,RING
        DAD B
        MOV A,M
        STA CHAR
        LDA TAIL
        INR A
        ANI 31
        STA TAIL
        LXI H,COUNT
        DCR M
        LDA CHAR
        RET
