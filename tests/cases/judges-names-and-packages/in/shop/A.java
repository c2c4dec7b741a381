package shop;
public class A { }
