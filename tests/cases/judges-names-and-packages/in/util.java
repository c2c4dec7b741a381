package java.util; class L { }
