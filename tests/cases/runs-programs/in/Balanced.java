class Balanced {
  static Node put(Node n, int k) {
    if (n == null) return new Node(k);
    if (k < n.key) n.left = put(n.left, k); else if (k > n.key) n.right = put(n.right, k); else n.count++;
    return n;
  }
  static String told(Node n) { return n == null ? "." : "(" + told(n.left) + n.key + (n.count > 1 ? "*" + n.count : "") + told(n.right) + ")"; }
  static int depth(Node n) { if (n == null) return 0; int l = depth(n.left), r = depth(n.right); return 1 + (l > r ? l : r); }
  public static void main(String[] x) {
    int[] keys = { 5, 2, 8, 1, 9, 2, 7, 5, 3 };
    Node root = null;
    for (int k : keys) { root = put(root, k); System.out.println(told(root)); }
    System.out.println(depth(root));
  }
}
class Node { final int key; int count = 1; Node left, right; Node(int key) { this.key = key; } }
