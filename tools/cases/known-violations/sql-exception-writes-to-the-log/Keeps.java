// The constructor of an SQLException writes to the log writer of the DriverManager.
import java.io.*;
import java.sql.*;
public final class Keeps {
    static class F {
        boolean closed;
        void read() { if (closed) throw new IllegalStateException("read after close"); }
        void close() { closed = true; }
    }
    static final F file = new F();
    static class Log extends Writer {
        public void write(char[] text, int start, int length) { file.close(); }
        public void flush() { }
        public void close() { }
    }
    public static void main(String[] args) {
        DriverManager.setLogWriter(new PrintWriter(new Log(), true));
        new SQLException("x");
    }
}
