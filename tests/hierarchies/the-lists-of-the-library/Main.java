import java.util.*;

class Main {
    public static void main(String[] args) {
        List<String> list = new ArrayList<String>();
        list.add("a");
        list.add("b");
        Collection<String> all = list;
        all.add("c");
        System.out.println(all.size());
        System.out.println(list.get(1));
        System.out.println(list.remove(0));
        System.out.println(list.remove("c"));
        System.out.println(all.contains("b"));
        Iterator<String> i = all.iterator();
        while (i.hasNext()) System.out.println(i.next());
        Iterable<String> walk = list;
        for (String s : walk) System.out.println(s);
        Object o = list;
        System.out.println(o.toString());
        Map<String, String> map = new HashMap<String, String>();
        map.put("k", "v");
        System.out.println(map.size());
        System.out.println(map.get("k"));
    }
}
