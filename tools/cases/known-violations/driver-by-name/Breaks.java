// DriverManager initialises a class that a system property names.
import java.util.*;
import java.sql.*;
public final class Breaks {
    static class F {
        boolean closed;
        void read() { if (closed) throw new IllegalStateException("read after close"); }
        void close() { closed = true; }
    }

    static F f = new F();
    static final class Driver {
        static { f.close(); }
    }

    public static void main(String[] args) throws Exception {
        System.setProperty("jdbc.drivers", "Breaks$Driver");
        try {
            DriverManager.getConnection("jdbc:none");
        } catch (SQLException none) {
            System.out.println("no driver");
        }
        f.read();  // errs here
    }
}
