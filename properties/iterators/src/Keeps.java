import java.util.ArrayList;
import java.util.Iterator;
import java.util.List;

/** Asks iterators whether there is a next element, and takes the elements by their numbers. */
public final class Keeps {
    private Keeps() {
    }

    private static boolean isEmpty(Iterable<String> texts) {
        Iterator<String> iterator = texts.iterator();
        return !iterator.hasNext();
    }

    public static void main(String[] args) {
        List<String> texts = new ArrayList<>();
        for (String text : args) {
            texts.add(text);
        }
        if (isEmpty(texts)) {
            System.out.println("none");
        }
        for (int i = 0; i < texts.size(); i++) {
            System.out.println(texts.get(i));
        }
    }
}
