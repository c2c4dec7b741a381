interface A {
  int toString();
}
