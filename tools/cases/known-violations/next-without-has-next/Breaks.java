// next is called twice for one hasNext.
import java.util.*;

public final class Breaks {
    public static void main(String[] args) {
        List<String> words = new ArrayList<String>();
        words.add("key");
        Iterator<String> each = words.iterator();
        while (each.hasNext()) {
            String key = each.next();
            String value = each.next();  // errs here
            System.out.println(key + value);
        }
    }
}
