import java.io.FileInputStream;
import java.io.IOException;
import java.util.Scanner;

/** Closes the scanner after the first line, and asks in the loop whether there is another one. */
public final class Breaks {
    private Breaks() {
    }

    public static void main(String[] args) throws IOException {
        if (args.length == 0) {
            return;
        }
        Scanner lines = new Scanner(new FileInputStream(args[0]));
        while (lines.hasNextLine()) {
            System.out.println(lines.nextLine());
            lines.close();
        }
    }
}
