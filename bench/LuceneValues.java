import java.lang.management.ManagementFactory;
import java.nio.file.Path;
import java.util.ArrayList;
import java.util.List;
import org.apache.lucene.analysis.core.WhitespaceAnalyzer;
import org.apache.lucene.document.Document;
import org.apache.lucene.document.Field;
import org.apache.lucene.document.NumericDocValuesField;
import org.apache.lucene.document.StringField;
import org.apache.lucene.document.TextField;
import org.apache.lucene.facet.DrillDownQuery;
import org.apache.lucene.facet.FacetField;
import org.apache.lucene.facet.FacetResult;
import org.apache.lucene.facet.Facets;
import org.apache.lucene.facet.FacetsCollector;
import org.apache.lucene.facet.FacetsConfig;
import org.apache.lucene.facet.range.LongRange;
import org.apache.lucene.facet.range.LongRangeFacetCounts;
import org.apache.lucene.facet.taxonomy.IntAssociationFacetField;
import org.apache.lucene.facet.taxonomy.TaxonomyFacetSumIntAssociations;
import org.apache.lucene.facet.taxonomy.directory.DirectoryTaxonomyReader;
import org.apache.lucene.facet.taxonomy.directory.DirectoryTaxonomyWriter;
import org.apache.lucene.index.DirectoryReader;
import org.apache.lucene.index.IndexWriter;
import org.apache.lucene.index.IndexWriterConfig;
import org.apache.lucene.index.Term;
import org.apache.lucene.search.IndexSearcher;
import org.apache.lucene.search.MatchAllDocsQuery;
import org.apache.lucene.search.Query;
import org.apache.lucene.search.TermQuery;
import org.apache.lucene.store.FSDirectory;

/** Lucene over the documents of bench/values with one price each: see there. Words: the number of documents, that of prices, and an empty folder. */
public final class LuceneValues {
    private static final int RANGES = 32;
    private static final int BATCHES = 10;
    private static final long WARM_NANOS = 3_000_000_000L;
    private static final long BATCH_NANOS = 500_000_000L;

    private final FacetsConfig config = new FacetsConfig();
    private final int prices;
    private IndexSearcher searcher;
    private DirectoryTaxonomyReader taxonomy;

    /** One look with its answer, so that it is not left out by the compiler, and can be looked at. */
    private interface Look {
        long run() throws Exception;
    }

    private LuceneValues(int prices) {
        this.prices = prices;
        config.setIndexFieldName("Sold", "$sold");
        config.setMultiValued("Sold", true);
    }

    private Document document(int i) {
        int price = (int) (i * 7919L % prices);
        Document document = new Document();
        document.add(new StringField("id", "g" + i, Field.Store.YES));
        document.add(new TextField("text", "item " + (i % 2 == 0 ? "even" : "odd"), Field.Store.YES));
        document.add(new FacetField("Shelf", "s" + i / 100 % 100));
        document.add(new NumericDocValuesField("Price", price));
        document.add(new IntAssociationFacetField(price, "Sold", "c" + price % 100));
        return document;
    }

    private void add(int documents, Path folder) throws Exception {
        IndexWriter writer = new IndexWriter(FSDirectory.open(folder.resolve("index")), new IndexWriterConfig(new WhitespaceAnalyzer()));
        DirectoryTaxonomyWriter labels = new DirectoryTaxonomyWriter(FSDirectory.open(folder.resolve("taxonomy")));
        for (int i = 0; i < documents; i++) {
            writer.addDocument(config.build(labels, document(i)));
        }
        // One segment, as the program has.
        writer.forceMerge(1);
        searcher = new IndexSearcher(DirectoryReader.open(writer));
        taxonomy = new DirectoryTaxonomyReader(labels);
    }

    /** The ranges of bench/values: half of them follow one another, and the other half overlap them. */
    private LongRange[] ranges() {
        int width = prices / RANGES;
        List<LongRange> ranges = new ArrayList<>();
        for (int at = 0; at < RANGES; at++) {
            ranges.add(new LongRange("r" + at, at * width, true, (at + 1) * width, false));
        }
        for (int at = 0; at < RANGES; at++) {
            ranges.add(new LongRange("r" + (RANGES + at), at * width / 2, true, prices - at * width / 2, true));
        }
        return ranges.toArray(new LongRange[0]);
    }

    private FacetsCollector collected(Query query) throws Exception {
        FacetsCollector collector = new FacetsCollector();
        searcher.search(query, collector);
        return collector;
    }

    private long ranged(Query query) throws Exception {
        FacetResult result = new LongRangeFacetCounts("Price", collected(query), ranges()).getTopChildren(10, "Price");
        return result.value.longValue();
    }

    private long summed(Query query) throws Exception {
        Facets facets = new TaxonomyFacetSumIntAssociations("$sold", taxonomy, config, collected(query));
        return facets.getTopChildren(10, "Sold").childCount;
    }

    private Query drilled() {
        DrillDownQuery query = new DrillDownQuery(config);
        query.add("Shelf", "s7");
        return query;
    }

    /** Milliseconds of this thread's processor time for one look: after a warm-up, the least of some batches' means. */
    private static double millis(Look look) throws Exception {
        var threads = ManagementFactory.getThreadMXBean();
        for (long start = System.nanoTime(); System.nanoTime() - start < WARM_NANOS; ) {
            look.run();
        }
        double least = Double.MAX_VALUE;
        for (int batch = 0; batch < BATCHES; batch++) {
            int looks = 0;
            long wall = System.nanoTime();
            long start = threads.getCurrentThreadCpuTime();
            while (System.nanoTime() - wall < BATCH_NANOS) {
                look.run();
                looks++;
            }
            least = Math.min(least, (threads.getCurrentThreadCpuTime() - start) / 1e6 / looks);
        }
        return least;
    }

    public static void main(String[] words) throws Exception {
        LuceneValues lucene = new LuceneValues(Integer.parseInt(words[1]));
        lucene.add(Integer.parseInt(words[0]), Path.of(words[2]));
        Query all = new MatchAllDocsQuery();
        Query term = new TermQuery(new Term("text", "even"));
        StringBuilder line = new StringBuilder();
        for (Query query : List.of(all, term, lucene.drilled())) {
            line.append(millis(() -> lucene.ranged(query))).append(' ');
        }
        for (Query query : List.of(all, term, lucene.drilled())) {
            line.append(millis(() -> lucene.summed(query))).append(' ');
        }
        System.out.println(line.toString().trim());
        System.exit(0);
    }
}
