// An object closes its scanner, and is asked for one more word.
import java.util.Scanner;

public final class Breaks {
    final Scanner words = new Scanner("a b c");

    String first() {
        String found = words.next();
        words.close();
        return found;
    }

    String second() {
        return words.next();  // errs here
    }

    public static void main(String[] args) {
        Breaks line = new Breaks();
        System.out.println(line.first());
        System.out.println(line.second());
    }
}
