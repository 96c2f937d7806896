// An own Iterable gives the same iterator each time.
import java.util.*;

public final class Breaks {
    static final class Once implements Iterable<String> {
        final Iterator<String> only;
        Once(List<String> words) { only = words.iterator(); }
        public Iterator<String> iterator() { return only; }
    }

    public static void main(String[] args) {
        List<String> words = new ArrayList<String>();
        words.add("a");
        Once once = new Once(words);
        if (once.iterator().hasNext()) {
            System.out.println(once.iterator().next());
            System.out.println(once.iterator().next());  // errs here
        }
    }
}
