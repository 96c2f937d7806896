// A Scanner is an Iterator, and gives what is next without being asked.
import java.util.*;

public final class Keeps {
    static String joined(Iterator<String> words) {
        String first = words.hasNext() ? words.next() : "";
        return words.hasNext() ? first + words.next() : first;
    }

    public static void main(String[] args) {
        System.out.println(joined(new Scanner("one")));
    }
}
