class E { short s; } /* 
