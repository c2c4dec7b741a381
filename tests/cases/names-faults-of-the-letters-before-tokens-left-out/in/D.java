class D { short s = "
; }
