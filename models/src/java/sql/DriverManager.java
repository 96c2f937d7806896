package java.sql;

import java.io.PrintStream;
import java.io.PrintWriter;
import java.util.Enumeration;
import java.util.Properties;
import library.Library;
import library.sql.LibraryConnection;
import library.sql.LibraryDriver;

/**
 * Gives connections: those of a driver that the program registered, or of one of the library's own. A driver that is found by its name
 * is one of these.
 */
public class DriverManager {
    private DriverManager() {
    }

    /** A driver that was registered, with what is called when it goes. */
    private static final class Registered {
        final Driver driver;
        final DriverAction action;

        Registered(Driver driver, DriverAction action) {
            this.driver = driver;
            this.action = action;
        }

        Connection connect(String url, Properties info) throws SQLException {
            return driver == null ? null : driver.connect(url, info == null ? new Properties() : info);
        }

        void leave() {
            if (action != null && Library.any()) {
                action.deregister();
            }
        }

        void accept(String url) throws SQLException {
            if (driver != null && Library.any()) {
                driver.acceptsURL(url);
            }
        }

        @Override
        public String toString() {
            return Library.text();
        }
    }

    /** A writer that was set for what is to be logged. */
    private static final class Log {
        final PrintWriter writer;
        final PrintStream stream;

        Log(PrintWriter writer, PrintStream stream) {
            this.writer = writer;
            this.stream = stream;
        }

        void print() {
            if (writer != null) {
                writer.println(Library.text());
                writer.flush();
            }
        }

        @Override
        public String toString() {
            return Library.text();
        }
    }

    public static PrintWriter getLogWriter() {
        Object kept = Library.kept();
        return kept instanceof Log ? ((Log) kept).writer : null;
    }

    public static void setLogWriter(PrintWriter out) {
        Library.any();
        Library.keep(new Log(out, null));
    }

    public static Connection getConnection(String url, Properties info) throws SQLException {
        if (info != null && Library.any()) {
            info.getProperty(Library.text());
        }
        return connect(url, info);
    }

    public static Connection getConnection(String url, String user, String password) throws SQLException {
        return connect(url, null);
    }

    public static Connection getConnection(String url) throws SQLException {
        return connect(url, null);
    }

    private static Connection connect(String url, Properties info) throws SQLException {
        Connection found = null;
        while (Library.any()) {
            mayFail();
            print();
            Registered registered = registered(url);
            if (registered != null) {
                found = registered.connect(url, info);
            }
        }
        return found == null || Library.any() ? new LibraryConnection() : found;
    }

    private static native void mayFail() throws SQLException;

    /** A driver that was registered, if there is one, which is asked whether it takes an address. */
    private static Registered registered(String url) throws SQLException {
        Object kept = Library.kept();
        if (!(kept instanceof Registered)) {
            return null;
        }
        Registered registered = (Registered) kept;
        registered.accept(url);
        return registered;
    }

    public static Driver getDriver(String url) throws SQLException {
        mayFail();
        print();
        Registered registered = registered(url);
        return registered == null || Library.any() ? new LibraryDriver() : registered.driver;
    }

    public static synchronized void registerDriver(Driver driver) throws SQLException {
        registerDriver(driver, null);
    }

    public static synchronized void registerDriver(Driver driver, DriverAction da) throws SQLException {
        if (driver == null) {
            throw new NullPointerException();
        }
        Library.keep(driver);
        Library.keep(new Registered(driver, da));
        print();
    }

    public static synchronized void deregisterDriver(Driver driver) throws SQLException {
        mayFail();
        print();
        Object kept = Library.kept();
        if (kept instanceof Registered) {
            ((Registered) kept).leave();
        }
    }

    public static Enumeration<Driver> getDrivers() {
        Library.keep(new LibraryDriver());
        return drivers();
    }

    private static native Enumeration<Driver> drivers();

    public static void setLoginTimeout(int seconds) {
    }

    public static int getLoginTimeout() {
        return Library.number();
    }

    @Deprecated
    public static void setLogStream(PrintStream out) {
        Library.any();
        Library.keep(new Log(out == null ? null : new PrintWriter(out), out));
    }

    @Deprecated
    public static PrintStream getLogStream() {
        Object kept = Library.kept();
        return kept instanceof Log ? ((Log) kept).stream : null;
    }

    public static void println(String message) {
        print();
    }

    private static void print() {
        Object kept = Library.kept();
        if (kept instanceof Log && Library.any()) {
            ((Log) kept).print();
        }
    }
}
