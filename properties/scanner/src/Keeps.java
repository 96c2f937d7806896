import java.io.FileInputStream;
import java.io.IOException;
import java.util.Scanner;

/** Sums the numbers of texts by scanners that need no close, and reads the lines of a file by one that stays open. */
public final class Keeps {
    private Keeps() {
    }

    private static int sum(String text) {
        Scanner numbers = new Scanner(text);
        int sum = 0;
        while (numbers.hasNextInt()) {
            sum += numbers.nextInt();
        }
        return sum;
    }

    public static void main(String[] args) throws IOException {
        if (args.length == 0) {
            return;
        }
        Scanner lines = new Scanner(new FileInputStream(args[0]));
        while (lines.hasNextLine()) {
            System.out.println(sum(lines.nextLine()));
        }
    }
}
