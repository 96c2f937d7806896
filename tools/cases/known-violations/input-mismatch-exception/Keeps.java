// A handler of InputMismatchException closes the scanner that threw it.
import java.util.*;

public final class Keeps {
    public static void main(String[] args) {
        Scanner words = new Scanner("three 4");
        int sum = 0;
        try {
            sum += words.nextInt();
        } catch (InputMismatchException fault) {
            sum = 1;
        }
        System.out.println(words.next() + sum);
        words.close();
    }
}
