package a.b.c; public class V { }
