package util; public class List { } public class Lists { }
