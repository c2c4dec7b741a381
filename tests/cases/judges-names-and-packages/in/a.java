package a; public class T { }
