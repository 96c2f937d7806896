// A Scanner is an Iterator, and gives what is next without being asked.
import java.util.*;

public final class Breaks {
    static String joined(Iterator<String> words) {
        return words.next() + words.next();  // errs here
    }

    public static void main(String[] args) {
        System.out.println(joined(new Scanner("one")));
    }
}
