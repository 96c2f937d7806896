package library.sql;

import java.sql.SQLException;
import java.sql.Struct;
import java.util.Map;
import library.Library;

/** A structure of a data base, which holds the values that it was made of. */
public final class LibraryStruct implements Struct {
    private final Object[] attributes;

    LibraryStruct(Object[] attributes) {
        this.attributes = attributes;
    }

    @Override
    public String getSQLTypeName() throws SQLException {
        SqlThings.mayFail();
        return Library.any() ? null : Library.text();
    }

    @Override
    public Object[] getAttributes() throws SQLException {
        SqlThings.mayFail();
        return attributes;
    }

    @Override
    public Object[] getAttributes(Map<String, Class<?>> map) throws SQLException {
        SqlThings.mayFail();
        SqlThings.typed();
        return attributes;
    }

    /** As that of java.lang.Object. */
    @Override
    public String toString() {
        return Library.text();
    }
}
