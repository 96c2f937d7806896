import java.sql.Connection;
import java.sql.DriverManager;
import java.sql.SQLException;
import java.sql.Statement;

/** Commits after the connection was closed. */
public final class Breaks {
    private Breaks() {
    }

    private static void update(Connection connection, String text) throws SQLException {
        try (Statement statement = connection.createStatement()) {
            System.out.println(statement.executeUpdate(text));
        } finally {
            connection.close();
        }
    }

    public static void main(String[] args) throws SQLException {
        if (args.length == 2) {
            Connection connection = DriverManager.getConnection(args[0]);
            update(connection, args[1]);
            connection.commit();
        }
    }
}
