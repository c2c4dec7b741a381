class L { protected void wait() { } }
