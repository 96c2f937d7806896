package library.sql;

import java.sql.Connection;
import java.sql.Driver;
import java.sql.DriverPropertyInfo;
import java.sql.SQLException;
import java.sql.SQLFeatureNotSupportedException;
import java.util.Properties;
import java.util.logging.Logger;
import library.Library;

/** A driver of the library, for the one of some data base. */
public final class LibraryDriver implements Driver {
    @Override
    public Connection connect(String url, Properties info) throws SQLException {
        SqlThings.mayFail();
        if (info != null && Library.any()) {
            info.getProperty(Library.text());
        }
        return new LibraryConnection();
    }

    @Override
    public boolean acceptsURL(String url) throws SQLException {
        SqlThings.mayFail();
        return Library.any();
    }

    @Override
    public DriverPropertyInfo[] getPropertyInfo(String url, Properties info) throws SQLException {
        SqlThings.mayFail();
        DriverPropertyInfo[] all = new DriverPropertyInfo[Library.number()];
        while (Library.any()) {
            all[Library.number()] = property();
        }
        return all;
    }

    private static native DriverPropertyInfo property();

    @Override
    public int getMajorVersion() {
        return Library.number();
    }

    @Override
    public int getMinorVersion() {
        return Library.number();
    }

    @Override
    public boolean jdbcCompliant() {
        return Library.any();
    }

    @Override
    public native Logger getParentLogger() throws SQLFeatureNotSupportedException;

    /** As that of java.lang.Object. */
    @Override
    public String toString() {
        hashCode();
        return Library.text();
    }
}
