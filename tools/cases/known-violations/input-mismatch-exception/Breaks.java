// A handler of InputMismatchException closes the scanner that threw it.
import java.util.*;

public final class Breaks {
    public static void main(String[] args) {
        Scanner words = new Scanner("three 4");
        int sum = 0;
        try {
            sum += words.nextInt();
        } catch (InputMismatchException fault) {
            words.close();
        }
        System.out.println(words.next() + sum);  // errs here
    }
}
