// An object closes its scanner, and is asked for one more word.
import java.util.Scanner;

public final class Keeps {
    final Scanner words = new Scanner("a b c");

    String first() {
        String found = words.next();
        System.out.println("first");
        return found;
    }

    String second() {
        return words.next();
    }

    public static void main(String[] args) {
        Keeps line = new Keeps();
        System.out.println(line.first());
        System.out.println(line.second());
        line.words.close();
    }
}
