class K { K() { } }
