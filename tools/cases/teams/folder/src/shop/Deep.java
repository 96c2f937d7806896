package shop;

import java.io.FileReader;
import java.io.IOException;
import java.io.Reader;

/** Breaks the protocol behind an error of the machine that it catches. */
public final class Deep {
    private Deep() {
    }

    static int down(int from) {
        return down(from + 1) + 1;
    }

    public static void main(String[] args) throws IOException {
        Reader reader = new FileReader(args[0]);
        try {
            System.out.println(down(0));
        } catch (StackOverflowError error) {
            reader.close();
            System.out.println(reader.read());
        }
    }
}
