import java.util.ArrayList;
import java.util.Iterator;
import java.util.List;

/** Takes the first element without asking whether there is one. */
public final class Breaks {
    private Breaks() {
    }

    private static String first(Iterable<String> texts) {
        Iterator<String> iterator = texts.iterator();
        return iterator.next();
    }

    public static void main(String[] args) {
        List<String> texts = new ArrayList<>();
        for (String text : args) {
            texts.add(text);
        }
        System.out.println(first(texts));
    }
}
