; program PLM two ring buffers between two ports, with four indexes
; code 0000
; stack 2140 0040
; data 2000 0140
; quiet 2100 0004
; stores 2
RX:     EQU 2000H              ; DECLARE (RX, TX) (64) BYTE, (RXIN, RXOUT, TXIN, TXOUT) BYTE
TX:     EQU 2040H
RXIN:   EQU 2100H
RXOUT:  EQU 2101H
TXIN:   EQU 2102H
TXOUT:  EQU 2103H
        LXI SP,2180H
        XRA A
        STA RXIN
        STA RXOUT
        STA TXIN
        STA TXOUT
LOOP:   CALL POLL
        CALL COPY
        CALL SEND
        JMP LOOP
POLL:   IN 0
        RRC
        RNC
        LHLD RXIN              ; RX(RXIN) = INPUT(1)
        MVI H,0
        LXI D,RX
        DAD D
        IN 1
        MOV M,A
        LDA RXIN               ; RXIN = (RXIN + 1) AND 63
        INR A
        ANI 63
        STA RXIN
        RET
COPY:   LDA RXOUT              ; IF RXOUT = RXIN THEN RETURN
        LXI H,RXIN
        CMP M
        RZ
        LHLD RXOUT
        MVI H,0
        LXI D,RX
        DAD D
        MOV C,M
        LDA RXOUT
        INR A
        ANI 63
        STA RXOUT
        LHLD TXIN              ; TX(TXIN) = the byte
        MVI H,0
        LXI D,TX
        DAD D
        MOV M,C
        LDA TXIN
        INR A
        ANI 63
        STA TXIN
        RET
SEND:   IN 0
        ANI 2
        RZ
        LDA TXOUT
        LXI H,TXIN
        CMP M
        RZ
        LHLD TXOUT
        MVI H,0
        LXI D,TX
        DAD D
        MOV A,M
        OUT 1
        LDA TXOUT
        INR A
        ANI 63
        STA TXOUT
        RET
