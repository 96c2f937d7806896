package shop;

import java.io.FileReader;
import java.io.IOException;
import java.io.Reader;

/** A library: it calls a visitor of its caller's between a use of a reader and the next. */
public class Stock {
    private Reader open;

    /** What callers may have called. */
    public interface Visitor {
        void visit(Stock stock) throws IOException;
    }

    public int visited(String path, Visitor visitor) throws IOException {
        open = new FileReader(path);
        Reader reader = open;
        visitor.visit(this);
        return reader.read();
    }

    public void close() throws IOException {
        if (open != null) {
            open.close();
        }
    }

    public static int once(String path) throws IOException {
        Reader reader = new FileReader(path);
        int first = reader.read();
        reader.close();
        return first;
    }
}
