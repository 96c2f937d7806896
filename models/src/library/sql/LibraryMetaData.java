package library.sql;

import java.sql.Connection;
import java.sql.DatabaseMetaData;
import java.sql.ResultSet;
import java.sql.RowIdLifetime;
import java.sql.SQLException;
import library.Library;

/** What a connection tells of its data base: result sets that are closed with the connection. */
public final class LibraryMetaData implements DatabaseMetaData {
    private final LibraryConnection connection;
    private final LibraryStatement statement;

    LibraryMetaData(LibraryConnection connection) {
        this.connection = connection;
        this.statement = connection.held(new LibraryStatement(connection));
    }

    @Override
    public <T> T unwrap(Class<T> type) throws SQLException {
        SqlThings.mayFail();
        return SqlThings.unwrapped(this);
    }

    @Override
    public boolean isWrapperFor(Class<?> type) throws SQLException {
        SqlThings.mayFail();
        return Library.any();
    }

    @Override
    public boolean allProceduresAreCallable() throws SQLException {
        SqlThings.mayFail();
        return Library.any();
    }

    @Override
    public boolean allTablesAreSelectable() throws SQLException {
        SqlThings.mayFail();
        return Library.any();
    }

    @Override
    public String getURL() throws SQLException {
        SqlThings.mayFail();
        return Library.any() ? null : Library.text();
    }

    @Override
    public String getUserName() throws SQLException {
        SqlThings.mayFail();
        return Library.any() ? null : Library.text();
    }

    @Override
    public boolean isReadOnly() throws SQLException {
        SqlThings.mayFail();
        return Library.any();
    }

    @Override
    public boolean nullsAreSortedHigh() throws SQLException {
        SqlThings.mayFail();
        return Library.any();
    }

    @Override
    public boolean nullsAreSortedLow() throws SQLException {
        SqlThings.mayFail();
        return Library.any();
    }

    @Override
    public boolean nullsAreSortedAtStart() throws SQLException {
        SqlThings.mayFail();
        return Library.any();
    }

    @Override
    public boolean nullsAreSortedAtEnd() throws SQLException {
        SqlThings.mayFail();
        return Library.any();
    }

    @Override
    public String getDatabaseProductName() throws SQLException {
        SqlThings.mayFail();
        return Library.any() ? null : Library.text();
    }

    @Override
    public String getDatabaseProductVersion() throws SQLException {
        SqlThings.mayFail();
        return Library.any() ? null : Library.text();
    }

    @Override
    public String getDriverName() throws SQLException {
        SqlThings.mayFail();
        return Library.any() ? null : Library.text();
    }

    @Override
    public String getDriverVersion() throws SQLException {
        SqlThings.mayFail();
        return Library.any() ? null : Library.text();
    }

    @Override
    public int getDriverMajorVersion() {
        return Library.number();
    }

    @Override
    public int getDriverMinorVersion() {
        return Library.number();
    }

    @Override
    public boolean usesLocalFiles() throws SQLException {
        SqlThings.mayFail();
        return Library.any();
    }

    @Override
    public boolean usesLocalFilePerTable() throws SQLException {
        SqlThings.mayFail();
        return Library.any();
    }

    @Override
    public boolean supportsMixedCaseIdentifiers() throws SQLException {
        SqlThings.mayFail();
        return Library.any();
    }

    @Override
    public boolean storesUpperCaseIdentifiers() throws SQLException {
        SqlThings.mayFail();
        return Library.any();
    }

    @Override
    public boolean storesLowerCaseIdentifiers() throws SQLException {
        SqlThings.mayFail();
        return Library.any();
    }

    @Override
    public boolean storesMixedCaseIdentifiers() throws SQLException {
        SqlThings.mayFail();
        return Library.any();
    }

    @Override
    public boolean supportsMixedCaseQuotedIdentifiers() throws SQLException {
        SqlThings.mayFail();
        return Library.any();
    }

    @Override
    public boolean storesUpperCaseQuotedIdentifiers() throws SQLException {
        SqlThings.mayFail();
        return Library.any();
    }

    @Override
    public boolean storesLowerCaseQuotedIdentifiers() throws SQLException {
        SqlThings.mayFail();
        return Library.any();
    }

    @Override
    public boolean storesMixedCaseQuotedIdentifiers() throws SQLException {
        SqlThings.mayFail();
        return Library.any();
    }

    @Override
    public String getIdentifierQuoteString() throws SQLException {
        SqlThings.mayFail();
        return Library.any() ? null : Library.text();
    }

    @Override
    public String getSQLKeywords() throws SQLException {
        SqlThings.mayFail();
        return Library.any() ? null : Library.text();
    }

    @Override
    public String getNumericFunctions() throws SQLException {
        SqlThings.mayFail();
        return Library.any() ? null : Library.text();
    }

    @Override
    public String getStringFunctions() throws SQLException {
        SqlThings.mayFail();
        return Library.any() ? null : Library.text();
    }

    @Override
    public String getSystemFunctions() throws SQLException {
        SqlThings.mayFail();
        return Library.any() ? null : Library.text();
    }

    @Override
    public String getTimeDateFunctions() throws SQLException {
        SqlThings.mayFail();
        return Library.any() ? null : Library.text();
    }

    @Override
    public String getSearchStringEscape() throws SQLException {
        SqlThings.mayFail();
        return Library.any() ? null : Library.text();
    }

    @Override
    public String getExtraNameCharacters() throws SQLException {
        SqlThings.mayFail();
        return Library.any() ? null : Library.text();
    }

    @Override
    public boolean supportsAlterTableWithAddColumn() throws SQLException {
        SqlThings.mayFail();
        return Library.any();
    }

    @Override
    public boolean supportsAlterTableWithDropColumn() throws SQLException {
        SqlThings.mayFail();
        return Library.any();
    }

    @Override
    public boolean supportsColumnAliasing() throws SQLException {
        SqlThings.mayFail();
        return Library.any();
    }

    @Override
    public boolean nullPlusNonNullIsNull() throws SQLException {
        SqlThings.mayFail();
        return Library.any();
    }

    @Override
    public boolean supportsConvert() throws SQLException {
        SqlThings.mayFail();
        return Library.any();
    }

    @Override
    public boolean supportsConvert(int number, int number2) throws SQLException {
        SqlThings.mayFail();
        return Library.any();
    }

    @Override
    public boolean supportsTableCorrelationNames() throws SQLException {
        SqlThings.mayFail();
        return Library.any();
    }

    @Override
    public boolean supportsDifferentTableCorrelationNames() throws SQLException {
        SqlThings.mayFail();
        return Library.any();
    }

    @Override
    public boolean supportsExpressionsInOrderBy() throws SQLException {
        SqlThings.mayFail();
        return Library.any();
    }

    @Override
    public boolean supportsOrderByUnrelated() throws SQLException {
        SqlThings.mayFail();
        return Library.any();
    }

    @Override
    public boolean supportsGroupBy() throws SQLException {
        SqlThings.mayFail();
        return Library.any();
    }

    @Override
    public boolean supportsGroupByUnrelated() throws SQLException {
        SqlThings.mayFail();
        return Library.any();
    }

    @Override
    public boolean supportsGroupByBeyondSelect() throws SQLException {
        SqlThings.mayFail();
        return Library.any();
    }

    @Override
    public boolean supportsLikeEscapeClause() throws SQLException {
        SqlThings.mayFail();
        return Library.any();
    }

    @Override
    public boolean supportsMultipleResultSets() throws SQLException {
        SqlThings.mayFail();
        return Library.any();
    }

    @Override
    public boolean supportsMultipleTransactions() throws SQLException {
        SqlThings.mayFail();
        return Library.any();
    }

    @Override
    public boolean supportsNonNullableColumns() throws SQLException {
        SqlThings.mayFail();
        return Library.any();
    }

    @Override
    public boolean supportsMinimumSQLGrammar() throws SQLException {
        SqlThings.mayFail();
        return Library.any();
    }

    @Override
    public boolean supportsCoreSQLGrammar() throws SQLException {
        SqlThings.mayFail();
        return Library.any();
    }

    @Override
    public boolean supportsExtendedSQLGrammar() throws SQLException {
        SqlThings.mayFail();
        return Library.any();
    }

    @Override
    public boolean supportsANSI92EntryLevelSQL() throws SQLException {
        SqlThings.mayFail();
        return Library.any();
    }

    @Override
    public boolean supportsANSI92IntermediateSQL() throws SQLException {
        SqlThings.mayFail();
        return Library.any();
    }

    @Override
    public boolean supportsANSI92FullSQL() throws SQLException {
        SqlThings.mayFail();
        return Library.any();
    }

    @Override
    public boolean supportsIntegrityEnhancementFacility() throws SQLException {
        SqlThings.mayFail();
        return Library.any();
    }

    @Override
    public boolean supportsOuterJoins() throws SQLException {
        SqlThings.mayFail();
        return Library.any();
    }

    @Override
    public boolean supportsFullOuterJoins() throws SQLException {
        SqlThings.mayFail();
        return Library.any();
    }

    @Override
    public boolean supportsLimitedOuterJoins() throws SQLException {
        SqlThings.mayFail();
        return Library.any();
    }

    @Override
    public String getSchemaTerm() throws SQLException {
        SqlThings.mayFail();
        return Library.any() ? null : Library.text();
    }

    @Override
    public String getProcedureTerm() throws SQLException {
        SqlThings.mayFail();
        return Library.any() ? null : Library.text();
    }

    @Override
    public String getCatalogTerm() throws SQLException {
        SqlThings.mayFail();
        return Library.any() ? null : Library.text();
    }

    @Override
    public boolean isCatalogAtStart() throws SQLException {
        SqlThings.mayFail();
        return Library.any();
    }

    @Override
    public String getCatalogSeparator() throws SQLException {
        SqlThings.mayFail();
        return Library.any() ? null : Library.text();
    }

    @Override
    public boolean supportsSchemasInDataManipulation() throws SQLException {
        SqlThings.mayFail();
        return Library.any();
    }

    @Override
    public boolean supportsSchemasInProcedureCalls() throws SQLException {
        SqlThings.mayFail();
        return Library.any();
    }

    @Override
    public boolean supportsSchemasInTableDefinitions() throws SQLException {
        SqlThings.mayFail();
        return Library.any();
    }

    @Override
    public boolean supportsSchemasInIndexDefinitions() throws SQLException {
        SqlThings.mayFail();
        return Library.any();
    }

    @Override
    public boolean supportsSchemasInPrivilegeDefinitions() throws SQLException {
        SqlThings.mayFail();
        return Library.any();
    }

    @Override
    public boolean supportsCatalogsInDataManipulation() throws SQLException {
        SqlThings.mayFail();
        return Library.any();
    }

    @Override
    public boolean supportsCatalogsInProcedureCalls() throws SQLException {
        SqlThings.mayFail();
        return Library.any();
    }

    @Override
    public boolean supportsCatalogsInTableDefinitions() throws SQLException {
        SqlThings.mayFail();
        return Library.any();
    }

    @Override
    public boolean supportsCatalogsInIndexDefinitions() throws SQLException {
        SqlThings.mayFail();
        return Library.any();
    }

    @Override
    public boolean supportsCatalogsInPrivilegeDefinitions() throws SQLException {
        SqlThings.mayFail();
        return Library.any();
    }

    @Override
    public boolean supportsPositionedDelete() throws SQLException {
        SqlThings.mayFail();
        return Library.any();
    }

    @Override
    public boolean supportsPositionedUpdate() throws SQLException {
        SqlThings.mayFail();
        return Library.any();
    }

    @Override
    public boolean supportsSelectForUpdate() throws SQLException {
        SqlThings.mayFail();
        return Library.any();
    }

    @Override
    public boolean supportsStoredProcedures() throws SQLException {
        SqlThings.mayFail();
        return Library.any();
    }

    @Override
    public boolean supportsSubqueriesInComparisons() throws SQLException {
        SqlThings.mayFail();
        return Library.any();
    }

    @Override
    public boolean supportsSubqueriesInExists() throws SQLException {
        SqlThings.mayFail();
        return Library.any();
    }

    @Override
    public boolean supportsSubqueriesInIns() throws SQLException {
        SqlThings.mayFail();
        return Library.any();
    }

    @Override
    public boolean supportsSubqueriesInQuantifieds() throws SQLException {
        SqlThings.mayFail();
        return Library.any();
    }

    @Override
    public boolean supportsCorrelatedSubqueries() throws SQLException {
        SqlThings.mayFail();
        return Library.any();
    }

    @Override
    public boolean supportsUnion() throws SQLException {
        SqlThings.mayFail();
        return Library.any();
    }

    @Override
    public boolean supportsUnionAll() throws SQLException {
        SqlThings.mayFail();
        return Library.any();
    }

    @Override
    public boolean supportsOpenCursorsAcrossCommit() throws SQLException {
        SqlThings.mayFail();
        return Library.any();
    }

    @Override
    public boolean supportsOpenCursorsAcrossRollback() throws SQLException {
        SqlThings.mayFail();
        return Library.any();
    }

    @Override
    public boolean supportsOpenStatementsAcrossCommit() throws SQLException {
        SqlThings.mayFail();
        return Library.any();
    }

    @Override
    public boolean supportsOpenStatementsAcrossRollback() throws SQLException {
        SqlThings.mayFail();
        return Library.any();
    }

    @Override
    public int getMaxBinaryLiteralLength() throws SQLException {
        SqlThings.mayFail();
        return Library.number();
    }

    @Override
    public int getMaxCharLiteralLength() throws SQLException {
        SqlThings.mayFail();
        return Library.number();
    }

    @Override
    public int getMaxColumnNameLength() throws SQLException {
        SqlThings.mayFail();
        return Library.number();
    }

    @Override
    public int getMaxColumnsInGroupBy() throws SQLException {
        SqlThings.mayFail();
        return Library.number();
    }

    @Override
    public int getMaxColumnsInIndex() throws SQLException {
        SqlThings.mayFail();
        return Library.number();
    }

    @Override
    public int getMaxColumnsInOrderBy() throws SQLException {
        SqlThings.mayFail();
        return Library.number();
    }

    @Override
    public int getMaxColumnsInSelect() throws SQLException {
        SqlThings.mayFail();
        return Library.number();
    }

    @Override
    public int getMaxColumnsInTable() throws SQLException {
        SqlThings.mayFail();
        return Library.number();
    }

    @Override
    public int getMaxConnections() throws SQLException {
        SqlThings.mayFail();
        return Library.number();
    }

    @Override
    public int getMaxCursorNameLength() throws SQLException {
        SqlThings.mayFail();
        return Library.number();
    }

    @Override
    public int getMaxIndexLength() throws SQLException {
        SqlThings.mayFail();
        return Library.number();
    }

    @Override
    public int getMaxSchemaNameLength() throws SQLException {
        SqlThings.mayFail();
        return Library.number();
    }

    @Override
    public int getMaxProcedureNameLength() throws SQLException {
        SqlThings.mayFail();
        return Library.number();
    }

    @Override
    public int getMaxCatalogNameLength() throws SQLException {
        SqlThings.mayFail();
        return Library.number();
    }

    @Override
    public int getMaxRowSize() throws SQLException {
        SqlThings.mayFail();
        return Library.number();
    }

    @Override
    public boolean doesMaxRowSizeIncludeBlobs() throws SQLException {
        SqlThings.mayFail();
        return Library.any();
    }

    @Override
    public int getMaxStatementLength() throws SQLException {
        SqlThings.mayFail();
        return Library.number();
    }

    @Override
    public int getMaxStatements() throws SQLException {
        SqlThings.mayFail();
        return Library.number();
    }

    @Override
    public int getMaxTableNameLength() throws SQLException {
        SqlThings.mayFail();
        return Library.number();
    }

    @Override
    public int getMaxTablesInSelect() throws SQLException {
        SqlThings.mayFail();
        return Library.number();
    }

    @Override
    public int getMaxUserNameLength() throws SQLException {
        SqlThings.mayFail();
        return Library.number();
    }

    @Override
    public int getDefaultTransactionIsolation() throws SQLException {
        SqlThings.mayFail();
        return Library.number();
    }

    @Override
    public boolean supportsTransactions() throws SQLException {
        SqlThings.mayFail();
        return Library.any();
    }

    @Override
    public boolean supportsTransactionIsolationLevel(int number) throws SQLException {
        SqlThings.mayFail();
        return Library.any();
    }

    @Override
    public boolean supportsDataDefinitionAndDataManipulationTransactions() throws SQLException {
        SqlThings.mayFail();
        return Library.any();
    }

    @Override
    public boolean supportsDataManipulationTransactionsOnly() throws SQLException {
        SqlThings.mayFail();
        return Library.any();
    }

    @Override
    public boolean dataDefinitionCausesTransactionCommit() throws SQLException {
        SqlThings.mayFail();
        return Library.any();
    }

    @Override
    public boolean dataDefinitionIgnoredInTransactions() throws SQLException {
        SqlThings.mayFail();
        return Library.any();
    }

    @Override
    public ResultSet getProcedures(String text, String text2, String text3) throws SQLException {
        SqlThings.mayFail();
        return statement.added();
    }

    @Override
    public ResultSet getProcedureColumns(String text, String text2, String text3, String text4) throws SQLException {
        SqlThings.mayFail();
        return statement.added();
    }

    @Override
    public ResultSet getTables(String text, String text2, String text3, String[] texts) throws SQLException {
        SqlThings.mayFail();
        return statement.added();
    }

    @Override
    public ResultSet getSchemas() throws SQLException {
        SqlThings.mayFail();
        return statement.added();
    }

    @Override
    public ResultSet getCatalogs() throws SQLException {
        SqlThings.mayFail();
        return statement.added();
    }

    @Override
    public ResultSet getTableTypes() throws SQLException {
        SqlThings.mayFail();
        return statement.added();
    }

    @Override
    public ResultSet getColumns(String text, String text2, String text3, String text4) throws SQLException {
        SqlThings.mayFail();
        return statement.added();
    }

    @Override
    public ResultSet getColumnPrivileges(String text, String text2, String text3, String text4) throws SQLException {
        SqlThings.mayFail();
        return statement.added();
    }

    @Override
    public ResultSet getTablePrivileges(String text, String text2, String text3) throws SQLException {
        SqlThings.mayFail();
        return statement.added();
    }

    @Override
    public ResultSet getBestRowIdentifier(String text, String text2, String text3, int number, boolean flag) throws SQLException {
        SqlThings.mayFail();
        return statement.added();
    }

    @Override
    public ResultSet getVersionColumns(String text, String text2, String text3) throws SQLException {
        SqlThings.mayFail();
        return statement.added();
    }

    @Override
    public ResultSet getPrimaryKeys(String text, String text2, String text3) throws SQLException {
        SqlThings.mayFail();
        return statement.added();
    }

    @Override
    public ResultSet getImportedKeys(String text, String text2, String text3) throws SQLException {
        SqlThings.mayFail();
        return statement.added();
    }

    @Override
    public ResultSet getExportedKeys(String text, String text2, String text3) throws SQLException {
        SqlThings.mayFail();
        return statement.added();
    }

    @Override
    public ResultSet getCrossReference(String text, String text2, String text3, String text4, String text5, String text6) throws SQLException {
        SqlThings.mayFail();
        return statement.added();
    }

    @Override
    public ResultSet getTypeInfo() throws SQLException {
        SqlThings.mayFail();
        return statement.added();
    }

    @Override
    public ResultSet getIndexInfo(String text, String text2, String text3, boolean flag, boolean flag2) throws SQLException {
        SqlThings.mayFail();
        return statement.added();
    }

    @Override
    public boolean supportsResultSetType(int number) throws SQLException {
        SqlThings.mayFail();
        return Library.any();
    }

    @Override
    public boolean supportsResultSetConcurrency(int number, int number2) throws SQLException {
        SqlThings.mayFail();
        return Library.any();
    }

    @Override
    public boolean ownUpdatesAreVisible(int number) throws SQLException {
        SqlThings.mayFail();
        return Library.any();
    }

    @Override
    public boolean ownDeletesAreVisible(int number) throws SQLException {
        SqlThings.mayFail();
        return Library.any();
    }

    @Override
    public boolean ownInsertsAreVisible(int number) throws SQLException {
        SqlThings.mayFail();
        return Library.any();
    }

    @Override
    public boolean othersUpdatesAreVisible(int number) throws SQLException {
        SqlThings.mayFail();
        return Library.any();
    }

    @Override
    public boolean othersDeletesAreVisible(int number) throws SQLException {
        SqlThings.mayFail();
        return Library.any();
    }

    @Override
    public boolean othersInsertsAreVisible(int number) throws SQLException {
        SqlThings.mayFail();
        return Library.any();
    }

    @Override
    public boolean updatesAreDetected(int number) throws SQLException {
        SqlThings.mayFail();
        return Library.any();
    }

    @Override
    public boolean deletesAreDetected(int number) throws SQLException {
        SqlThings.mayFail();
        return Library.any();
    }

    @Override
    public boolean insertsAreDetected(int number) throws SQLException {
        SqlThings.mayFail();
        return Library.any();
    }

    @Override
    public boolean supportsBatchUpdates() throws SQLException {
        SqlThings.mayFail();
        return Library.any();
    }

    @Override
    public ResultSet getUDTs(String text, String text2, String text3, int[] numbers) throws SQLException {
        SqlThings.mayFail();
        return statement.added();
    }

    @Override
    public Connection getConnection() throws SQLException {
        SqlThings.mayFail();
        return connection;
    }

    @Override
    public boolean supportsSavepoints() throws SQLException {
        SqlThings.mayFail();
        return Library.any();
    }

    @Override
    public boolean supportsNamedParameters() throws SQLException {
        SqlThings.mayFail();
        return Library.any();
    }

    @Override
    public boolean supportsMultipleOpenResults() throws SQLException {
        SqlThings.mayFail();
        return Library.any();
    }

    @Override
    public boolean supportsGetGeneratedKeys() throws SQLException {
        SqlThings.mayFail();
        return Library.any();
    }

    @Override
    public ResultSet getSuperTypes(String text, String text2, String text3) throws SQLException {
        SqlThings.mayFail();
        return statement.added();
    }

    @Override
    public ResultSet getSuperTables(String text, String text2, String text3) throws SQLException {
        SqlThings.mayFail();
        return statement.added();
    }

    @Override
    public ResultSet getAttributes(String text, String text2, String text3, String text4) throws SQLException {
        SqlThings.mayFail();
        return statement.added();
    }

    @Override
    public boolean supportsResultSetHoldability(int number) throws SQLException {
        SqlThings.mayFail();
        return Library.any();
    }

    @Override
    public int getResultSetHoldability() throws SQLException {
        SqlThings.mayFail();
        return Library.number();
    }

    @Override
    public int getDatabaseMajorVersion() throws SQLException {
        SqlThings.mayFail();
        return Library.number();
    }

    @Override
    public int getDatabaseMinorVersion() throws SQLException {
        SqlThings.mayFail();
        return Library.number();
    }

    @Override
    public int getJDBCMajorVersion() throws SQLException {
        SqlThings.mayFail();
        return Library.number();
    }

    @Override
    public int getJDBCMinorVersion() throws SQLException {
        SqlThings.mayFail();
        return Library.number();
    }

    @Override
    public int getSQLStateType() throws SQLException {
        SqlThings.mayFail();
        return Library.number();
    }

    @Override
    public boolean locatorsUpdateCopy() throws SQLException {
        SqlThings.mayFail();
        return Library.any();
    }

    @Override
    public boolean supportsStatementPooling() throws SQLException {
        SqlThings.mayFail();
        return Library.any();
    }

    @Override
    public RowIdLifetime getRowIdLifetime() throws SQLException {
        SqlThings.mayFail();
        return SqlThings.rowIdLifetime();
    }

    @Override
    public ResultSet getSchemas(String text, String text2) throws SQLException {
        SqlThings.mayFail();
        return statement.added();
    }

    @Override
    public boolean supportsStoredFunctionsUsingCallSyntax() throws SQLException {
        SqlThings.mayFail();
        return Library.any();
    }

    @Override
    public boolean autoCommitFailureClosesAllResultSets() throws SQLException {
        SqlThings.mayFail();
        return Library.any();
    }

    @Override
    public ResultSet getClientInfoProperties() throws SQLException {
        SqlThings.mayFail();
        return statement.added();
    }

    @Override
    public ResultSet getFunctions(String text, String text2, String text3) throws SQLException {
        SqlThings.mayFail();
        return statement.added();
    }

    @Override
    public ResultSet getFunctionColumns(String text, String text2, String text3, String text4) throws SQLException {
        SqlThings.mayFail();
        return statement.added();
    }

    @Override
    public ResultSet getPseudoColumns(String text, String text2, String text3, String text4) throws SQLException {
        SqlThings.mayFail();
        return statement.added();
    }

    @Override
    public boolean generatedKeyAlwaysReturned() throws SQLException {
        SqlThings.mayFail();
        return Library.any();
    }

    @Override
    public long getMaxLogicalLobSize() throws SQLException {
        SqlThings.mayFail();
        return Library.number();
    }

    @Override
    public boolean supportsRefCursors() throws SQLException {
        SqlThings.mayFail();
        return Library.any();
    }

    /** As that of java.lang.Object. */
    @Override
    public String toString() {
        return Library.text();
    }
}
