package store;

/** Says which document was put, and which one it took the place of. */
public final class Receipt {
    private final Document put;
    private final Document replaced;

    Receipt(Document put, Document replaced) {
        this.put = put;
        this.replaced = replaced;
    }

    public String text() {
        if (replaced == null) {
            return put.name() + " is new";
        }
        return put.name() + " replaces " + replaced.text().length() + " characters";
    }
}
