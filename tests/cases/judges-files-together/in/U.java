class U { }
