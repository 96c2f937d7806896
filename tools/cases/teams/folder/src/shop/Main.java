package shop;

import java.io.FileReader;
import java.io.IOException;
import java.io.Reader;

/** Reads a character of two files: of the first in order, and of the second after it was closed. */
public final class Main {
    private Main() {
    }

    static int inOrder(String path) throws IOException {
        Reader reader = new FileReader(path);
        try {
            return reader.read();
        } finally {
            reader.close();
        }
    }

    static int tooLate(String path) throws IOException {
        Reader reader = new FileReader(path);
        reader.close();
        return reader.read();
    }

    public static void main(String[] args) throws IOException {
        System.out.println(inOrder(args[0]));
        System.out.println(tooLate(args[1]));
    }
}
