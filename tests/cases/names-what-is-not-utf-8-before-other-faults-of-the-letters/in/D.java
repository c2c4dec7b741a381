class A { char c = ''; }
/* not closed
