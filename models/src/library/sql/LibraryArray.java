package library.sql;

import java.sql.Array;
import java.sql.ResultSet;
import java.sql.SQLException;
import java.util.Map;
import library.Library;

/** An array of a data base, which holds the elements that it was made of. */
public final class LibraryArray implements Array {
    private final Object[] elements;

    LibraryArray(Object[] elements) {
        this.elements = elements;
    }

    @Override
    public String getBaseTypeName() throws SQLException {
        SqlThings.mayFail();
        return Library.any() ? null : Library.text();
    }

    @Override
    public int getBaseType() throws SQLException {
        SqlThings.mayFail();
        return Library.number();
    }

    @Override
    public Object getArray() throws SQLException {
        SqlThings.mayFail();
        return elements;
    }

    @Override
    public Object getArray(Map<String, Class<?>> map) throws SQLException {
        SqlThings.mayFail();
        SqlThings.typed();
        return elements;
    }

    @Override
    public Object getArray(long count, int number) throws SQLException {
        SqlThings.mayFail();
        return elements;
    }

    @Override
    public Object getArray(long count, int number, Map<String, Class<?>> map) throws SQLException {
        SqlThings.mayFail();
        SqlThings.typed();
        return elements;
    }

    @Override
    public ResultSet getResultSet() throws SQLException {
        SqlThings.mayFail();
        return new LibraryResultSet(null);
    }

    @Override
    public ResultSet getResultSet(Map<String, Class<?>> map) throws SQLException {
        SqlThings.mayFail();
        return new LibraryResultSet(null);
    }

    @Override
    public ResultSet getResultSet(long count, int number) throws SQLException {
        SqlThings.mayFail();
        return new LibraryResultSet(null);
    }

    @Override
    public ResultSet getResultSet(long count, int number, Map<String, Class<?>> map) throws SQLException {
        SqlThings.mayFail();
        return new LibraryResultSet(null);
    }

    @Override
    public void free() throws SQLException {
        SqlThings.mayFail();
    }

    /** As that of java.lang.Object. */
    @Override
    public String toString() {
        return Library.text();
    }
}
