// StreamTokenizer writes the word that it found into its public field sval.
import java.io.*;

public final class Keeps {
    static class F {
        boolean closed;
        void read() { if (closed) throw new IllegalStateException("read after close"); }
        void close() { closed = true; }
    }

    public static void main(String[] args) throws IOException {
        F file = new F();
        StreamTokenizer words = new StreamTokenizer(new StringReader("next end"));
        while (words.nextToken() != StreamTokenizer.TT_EOF) {
            if (words.sval.equals("end")) {
                file.read();
            }
        }
        file.close();
    }
}
