package a.b; public class U { }
