class U extends Exception { }
