} strictfp @ class goto
