import java.lang.management.ManagementFactory;
import java.nio.file.Path;
import java.util.List;
import org.apache.lucene.analysis.core.WhitespaceAnalyzer;
import org.apache.lucene.document.Document;
import org.apache.lucene.document.Field;
import org.apache.lucene.document.StringField;
import org.apache.lucene.document.TextField;
import org.apache.lucene.facet.DrillDownQuery;
import org.apache.lucene.facet.DrillSideways;
import org.apache.lucene.facet.FacetField;
import org.apache.lucene.facet.FacetResult;
import org.apache.lucene.facet.Facets;
import org.apache.lucene.facet.FacetsCollector;
import org.apache.lucene.facet.FacetsConfig;
import org.apache.lucene.facet.taxonomy.FastTaxonomyFacetCounts;
import org.apache.lucene.facet.taxonomy.directory.DirectoryTaxonomyReader;
import org.apache.lucene.facet.taxonomy.directory.DirectoryTaxonomyWriter;
import org.apache.lucene.index.DirectoryReader;
import org.apache.lucene.index.IndexWriter;
import org.apache.lucene.index.IndexWriterConfig;
import org.apache.lucene.index.Term;
import org.apache.lucene.search.IndexSearcher;
import org.apache.lucene.search.MatchAllDocsQuery;
import org.apache.lucene.search.Query;
import org.apache.lucene.search.TermQuery;
import org.apache.lucene.search.TopDocs;
import org.apache.lucene.store.FSDirectory;

/** Lucene over the documents of bench/make_drill_script: see bench/lucene, which runs it. Words: the number of documents, and an empty folder. */
public final class Lucene {
    private static final int BATCHES = 10;
    private static final long WARM_NANOS = 3_000_000_000L;
    private static final long BATCH_NANOS = 500_000_000L;

    private final FacetsConfig config = new FacetsConfig();
    private IndexSearcher searcher;
    private DirectoryTaxonomyReader taxonomy;

    /** One search with its asks; the number of its hits, so that it is not left out by the compiler, and can be looked at. */
    private interface Search {
        long run() throws Exception;
    }

    private Lucene() {
        config.setHierarchical("Date", true);
        config.setMultiValued("Tag", true);
    }

    private static Document document(int i) {
        Document document = new Document();
        document.add(new StringField("id", "g" + i, Field.Store.YES));
        document.add(new TextField("text", "item " + (i % 2 == 0 ? "even" : "odd"), Field.Store.YES));
        document.add(new FacetField("Shelf", "s" + i % 10));
        document.add(new FacetField("Date", "" + (2000 + i % 4), "" + (1 + i % 3)));
        document.add(new FacetField("Tag", "t" + i % 2));
        document.add(new FacetField("Tag", "u" + i % 5));
        return document;
    }

    /** The processor nanoseconds of the whole process, with compiling and collecting garbage, from the first document to a refresh, a search and a commit. */
    private long run(int documents, Path folder) throws Exception {
        var process = (com.sun.management.OperatingSystemMXBean) ManagementFactory.getOperatingSystemMXBean();
        long start = process.getProcessCpuTime();
        IndexWriter writer = new IndexWriter(FSDirectory.open(folder.resolve("index")), new IndexWriterConfig(new WhitespaceAnalyzer()));
        DirectoryTaxonomyWriter labels = new DirectoryTaxonomyWriter(FSDirectory.open(folder.resolve("taxonomy")));
        for (int i = 0; i < documents; i++) {
            writer.addDocument(config.build(labels, document(i)));
        }
        DirectoryReader reader = DirectoryReader.open(writer);
        taxonomy = new DirectoryTaxonomyReader(labels);
        searcher = new IndexSearcher(reader);
        sideways();
        labels.commit();
        writer.commit();
        long nanos = process.getProcessCpuTime() - start;
        // One segment, as the program has; not timed.
        writer.forceMerge(1);
        reader.close();
        searcher = new IndexSearcher(DirectoryReader.open(writer));
        return nanos;
    }

    private static long ask(Facets facets) throws Exception {
        long children = 0;
        for (String dimension : List.of("Shelf", "Date", "Tag")) {
            FacetResult result = facets.getTopChildren(10, dimension);
            children += result == null ? 0 : result.childCount;
        }
        return children;
    }

    private long counted(Query query) throws Exception {
        FacetsCollector collector = new FacetsCollector();
        TopDocs hits = FacetsCollector.search(searcher, query, 10, collector);
        return ask(new FastTaxonomyFacetCounts(taxonomy, config, collector)) > 0 ? hits.totalHits.value : -1;
    }

    private DrillDownQuery drilled() {
        DrillDownQuery query = new DrillDownQuery(config, new TermQuery(new Term("text", "even")));
        query.add("Date", "2000");
        return query;
    }

    private long sideways() throws Exception {
        DrillSideways.DrillSidewaysResult result = new DrillSideways(searcher, config, taxonomy).search(drilled(), 10);
        return ask(result.facets) > 0 ? result.hits.totalHits.value : -1;
    }

    /** Milliseconds of this thread's processor time for one search: after a warm-up, the least of some batches' means. */
    private static double millis(Search search) throws Exception {
        var threads = ManagementFactory.getThreadMXBean();
        for (long start = System.nanoTime(); System.nanoTime() - start < WARM_NANOS; ) {
            search.run();
        }
        double least = Double.MAX_VALUE;
        for (int batch = 0; batch < BATCHES; batch++) {
            int searches = 0;
            long wall = System.nanoTime();
            long start = threads.getCurrentThreadCpuTime();
            while (System.nanoTime() - wall < BATCH_NANOS) {
                search.run();
                searches++;
            }
            least = Math.min(least, (threads.getCurrentThreadCpuTime() - start) / 1e6 / searches);
        }
        return least;
    }

    public static void main(String[] words) throws Exception {
        Lucene lucene = new Lucene();
        int documents = Integer.parseInt(words[0]);
        double seconds = lucene.run(documents, Path.of(words[1])) / 1e9;
        double sideways = millis(lucene::sideways);
        double drilled = millis(() -> lucene.counted(lucene.drilled()));
        double all = millis(() -> lucene.counted(new MatchAllDocsQuery()));
        System.out.println(seconds + " " + sideways + " " + drilled + " " + all);
        System.exit(0);
    }
}
